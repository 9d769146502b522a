### The menu bar of the browser

-brand = Kestrel

## The menu File

menu-file =
    .label = File
    .accesskey = F
menu-file-new-tab =
    .label = New Tab
    .accesskey = T
menu-file-new-window =
    .label = New Window
    .accesskey = N
menu-file-private-window =
    .label = New Private Window
    .accesskey = W
menu-file-open =
    .label = Open File…
    .accesskey = O
menu-file-close =
    .label =
        { $tabs ->
            [1] Close Window
            [one] Close Tab
           *[other] Close { $tabs } Tabs
        }
    .accesskey = C
menu-file-quit =
    .label = Quit { -brand }
    .accesskey =
        { PLATFORM() ->
            [windows] x
           *[other] Q
        }

## The menu Help

menu-help-about =
    .label = About { -brand }
    .accesskey = A
menu-help-report =
    .label = Report a Deceptive Site…
    .accesskey = D
    .tooltiptext = Tell { -brand } about a site that pretends to be another
