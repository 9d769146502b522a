## The library

library-count =
    { $photos ->
        [0] No photos
        [one] One photo
       *[other] { NUMBER($photos) } photos
    }, { $videos ->
        [0] no videos
        [one] one video
       *[other] { NUMBER($videos) } videos
    }
library-import = Import from { $device }
    .progress = { $done } of { $all }
    .failed = { $count } files can’t be read.
album-new =
    .label = New Album
    .accesskey = N
album-rename = Rename “{ $album }”
album-shared = Shared with { $friends }
    .link = Copy the link

## The editor

edit-crop = Crop
    .square = Square
    .original = Original ratio
edit-light = Light
edit-undo =
    .title =
        { PLATFORM() ->
            [macos] Undo (⌘Z)
           *[other] Undo (Ctrl+Z)
        }
edit-info =
    Taken on { DATETIME($date, dateStyle: "full") }
    with { $camera } at ISO { $iso },
    { $aperture } and { $exposure } s
map-place = Near { $place }
