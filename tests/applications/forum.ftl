### A forum: lists of topics, posts and members

topics = Topics
    .empty = Nobody has asked anything yet. { topics-new }
topics-new = Ask the first question
topic-replies =
    { $replies ->
        [0] No reply
        [one] One reply
       *[other] { $replies } replies
    }
topic-last = Last reply by { $member } on { DATETIME($date, dateStyle: "long") }

post-edit = Edit
    .title = Change what you wrote
post-report = Report
    .title = Tell a moderator about this post
post-quote = { $member } wrote:
post-likes = { $gender ->
    [feminine] She likes this
    [masculine] He likes this
   *[other] They like this
}

member-since = Member since { $year }
member-rank = { $rank ->
    [moderator] Moderator
    [founder] Founder
   *[member] Member
} of { -forum }
member-ban =
    .label = Ban { $member }
    .accesskey = B
    .confirm =
        Ban { $member }?
        All posts of { $member } are hidden.
-forum = The Long Table
