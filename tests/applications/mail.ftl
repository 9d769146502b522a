# Shown above the list of messages
mail-unread =
    { $unread ->
        [0] All messages are read
        [one] One unread message
       *[other] { $unread } unread messages
    }

mail-received = Received on { DATETIME($date, month: "long", day: "numeric", year: "numeric") }
mail-from = From: { $sender }
mail-attachment = { $name } ({ $size } KB)
    .title = Save { $name } to a folder
    .alt = Attachment

mail-delete-confirm =
    Delete this message? It goes to the trash,
    from which it is removed after { $days ->
        [one] one day
       *[other] { $days } days
    }.

mail-signature = --
    { $user }
    Sent with { -product }

mail-quota = { NUMBER($used, maximumFractionDigits: 1) } of { NUMBER($all, maximumFractionDigits: 1) } GB are used

-product = Post Horn
    .gender = neuter

mail-send-later =
    .label = Send Later
    .accesskey = L
    .key = Return
