routine a public budget 9
FOO