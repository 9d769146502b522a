account-balance = Balance: { NUMBER($balance, style: "currency", currency: "EUR") }
account-owner = Owner: { $owner }
account-iban = IBAN
    .copy = Copy the IBAN
    .copied = The IBAN { $iban } was copied.

transfer-title = New transfer
transfer-to = Recipient
    .placeholder = Name of a person or a company
transfer-amount = Amount
    .error =
        { $reason ->
            [too-small] The least amount is { $least }.
            [too-large] You can transfer { $most } a day.
           *[other] This is no amount.
        }
transfer-confirm =
    Transfer { $amount } to { $recipient }?
    It can’t be called back.
transfer-done = { $amount } are on their way to { $recipient }.
transfer-tan = Enter the code that we have sent to { $phone } ({ $seconds } s)

card-blocked = Your card ending in { $digits } is blocked.
    .unblock = Unblock it
    .order = Order a new one
session-ends =
    { $seconds ->
        [one] You are signed out in one second.
       *[other] You are signed out in { $seconds } seconds.
    }
-bank = Ledger & Daughters
bank-hotline = Call { -bank } at { "+49 30 0000" }, at any hour.
