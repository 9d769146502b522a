game-title = Stone Garden
game-start = Start
game-continue = Continue with level { $level }
game-level-done =
    { $stars ->
        [0] You have reached the end of the level.
        [1] One star!
        [2] Two stars!
       *[other] All { $stars } stars, { $player }!
    }
game-score = { NUMBER($score, useGrouping: "always") } points
game-lives = { $lives ->
    [one] One life left
   *[other] { $lives } lives left
}
game-pause = Paused
    .hint = Press Escape to go on

settings-sound = Sound
    .on = On
    .off = Off
settings-difficulty = Difficulty
    .easy = Calm
    .hard = Stormy
settings-language = Language: { $language }

help-move =
    Use the arrow keys to move a stone.
    A stone stops at the next wall,
    or at another stone.
help-undo = Undo a move with { KEY("Backspace") }, as often as you like.
credits = Music by { $musician }, { $year }
