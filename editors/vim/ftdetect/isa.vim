" Ciderlater's files of declarations
autocmd BufNewFile,BufRead *.isa setfiletype isa
