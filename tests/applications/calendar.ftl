# $title (String) - the title of the event
# $start (Date) - when it begins
event-reminder = “{ $title }” begins at { DATETIME($start, timeStyle: "short") }
event-all-day = All day
event-invite =
    { $guests ->
        [0] Nobody is invited yet.
        [one] { $organizer } invited one guest.
       *[other] { $organizer } invited { $guests } guests.
    }
event-location = Location
    .placeholder = Room, address, or link
event-repeat = Repeats
    .never = Never
    .daily = Every day
    .weekly =
        { $weeks ->
            [1] Every week
           *[other] Every { $weeks } weeks
        }
event-delete =
    .label = Delete
    .confirm = Delete “{ $title }” for all guests?

calendar-new = New calendar
calendar-share =
    Share this calendar with { $person }?
    They can see and change all events.
calendar-sync = Last synchronized { $minutes ->
        [one] a minute
       *[other] { $minutes } minutes
    } ago
week-number = Week { $week }
