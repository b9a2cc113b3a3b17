routine main public budget 9
        ILOCK s1 p2 w0 w1 4 e
        STW w3 p2 0
        IUNLOCK s1
e:      RET
