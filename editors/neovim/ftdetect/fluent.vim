" Fluent files end with .ftl. (FreeMarker's do too, and neovim takes them for those by itself.)
autocmd BufRead,BufNewFile *.ftl set filetype=fluent
