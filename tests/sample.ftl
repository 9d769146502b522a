### Settings of the application

## Title bar

# Shown in the title bar.
# $app is the name of the application.
title = My { $app }
-brand-name = Dovelectern
    .gender = masculine
open =
    Open the file that was chosen
      and show it in a new tab,
    with { -brand-name } or without.
    .accesskey = O
    .label = Open { $count } of { NUMBER($total, minimumFractionDigits: 2) }
tabs-closed =
    { $count ->
        [0] No tab was closed
        [one] One tab was closed
       *[other] { $count } tabs were closed in { -brand-name(case: "locative") }
    }
quoted = He said { "\"hello\" \u00e9" } and left.
bro ken = x
close = Close
