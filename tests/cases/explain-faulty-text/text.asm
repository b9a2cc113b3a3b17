routine one public budget 1
        RTE
