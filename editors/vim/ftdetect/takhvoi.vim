autocmd BufRead,BufNewFile *.tkv setfiletype takhvoi
