## Preferences: general

preferences-title = Preferences
preferences-search =
    .placeholder = Find in Preferences
    .style = width: 15.4em

startup-header = Startup
startup-restore =
    .label = Open previous windows and tabs
    .accesskey = s
startup-default-browser = { -brand } is currently your default browser
startup-not-default-browser = { -brand } is not your default browser
startup-set-default =
    .label = Make Default…
    .accesskey = D

# Variables:
#   $name - the name of the extension
#   $count - how many settings it changed
extension-changes =
    { $count ->
        [one] <strong>{ $name }</strong> changed a setting.
       *[other]
            <strong>{ $name }</strong> changed { NUMBER($count) } settings.
            Review them before you go on.
    }

language-header = Language
language-choose = Choose the languages that menus, messages, and notifications from { -brand } are shown in.
language-fallback =
    .label = Search for more languages…
    .value = { "" }

fonts-size = Size
    .accesskey = z
fonts-advanced =
    .label = Advanced…
    .accesskey = A
-brand = Kestrel
