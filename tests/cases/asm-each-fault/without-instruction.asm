routine a public budget 9
routine a public budget 9