routine add public budget 3
        RET
seventeen_letters: RET
