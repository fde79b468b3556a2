" Scripts of the leak detector end in .km, live scripts in .live.
autocmd BufRead,BufNewFile *.km,*.live setfiletype kmemleak
