-os = Aurora
-assistant = Wren

call-incoming = Call from { $caller }
call-missed =
    { $count ->
        [one] Missed call from { $caller }
       *[other] { $count } missed calls
    }
call-duration = { $minutes }:{ $seconds }
contact-new = New contact
    .first-name = First name
    .last-name = Last name
    .phone = Phone number
contact-blocked = { $name } can’t call you any more.
    .undo = Unblock

update-title = { -os } { $version } is available
update-text =
    The update has { $size } MB and takes about { NUMBER($minutes) } minutes.
    { -os } restarts when it is done.
    .install = Install now
    .later = Tonight
assistant-greeting = Hello, I am { -assistant }. What can I do?
assistant-alarm = I wake you at { DATETIME($time, timeStyle: "short") }.
battery-low =
    { $percent ->
       *[other] { $percent } % left
        [one] One percent left
    }
    .saver = Turn on the battery saver
