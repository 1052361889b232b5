" Files that end in .sy are contracts, bindings and questions of symboleo.
autocmd BufRead,BufNewFile *.sy setfiletype symboleo
