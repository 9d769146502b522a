cart-title = Your cart
cart-items = { $items ->
    [0] Your cart is empty.
    [one] One article
   *[other] { $items } articles
}
cart-total = Total: { NUMBER($total, currency: "EUR", minimumFractionDigits: 2) }
cart-remove = Remove
    .aria-label = Remove { $article } from the cart

checkout-title = Checkout
checkout-address = Delivery address
checkout-street = Street and number
    .placeholder = 12 Example Street
checkout-city = City
    .placeholder = Exampleton
checkout-terms =
    I have read the <a data-l10n-name="terms">terms</a>
    and the <a data-l10n-name="privacy">privacy notice</a>.
checkout-pay = Pay { $sum } now
    .accesskey = P

order-done = Thank you, { $name }!
order-mail = We have sent a message to { $address }.
order-status =
    { $status ->
        [paid] Your order is paid.
        [sent]
            Your order was sent on { DATETIME($date) }.
            It arrives in { $days } days.
       *[open] Your order is being prepared.
    }
order-returns = You can send back { -store-name(case: "genitive") } articles within 30 days.

-store-name =
    { $case ->
        [genitive] The Corner Shop’s
       *[nominative] The Corner Shop
    }
