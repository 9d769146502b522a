## Toolbar

toolbar-bold =
    .title = Bold (Ctrl+B)
    .aria-label = Bold
toolbar-italic =
    .title = Italic (Ctrl+I)
    .aria-label = Italic
toolbar-link =
    .title = Insert a link
    .aria-label = Link

## Status bar

status-words =
    { $words ->
        [one] { $words } word
       *[other] { $words } words
    }
status-saved = Saved at { DATETIME($time, hour: "2-digit", minute: "2-digit") }
status-saving = Saving…
status-conflict = “{ $title }” was changed by { $other } as well.
    .action = Show both

## Dialogs

find-placeholder =
    .placeholder = Find
replace-all = Replace all { $matches ->
    [one] match
   *[other] { $matches } matches
}
export-title = Export “{ $title }”
export-format = Format
    .pdf = PDF document
    .html = Web page
    .txt = Plain text
discard-title = Discard your changes?
discard-text = { -app } keeps no copy of what you discard.
-app = Quire
