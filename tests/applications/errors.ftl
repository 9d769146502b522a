### Pages that are shown in the place of a site that can't be reached

error-title = Problem loading page
error-dns-title = We can’t connect to the server at { $host }.
error-dns-text =
    If you entered the right address, you can:

    Try again later
    Check your network connection
    Check that { -brand } has permission to access the web

error-offline-text =
    Press “{ error-retry.label }” to switch to online mode
    and reload the page.
error-retry =
    .label = Try Again
error-proxy-text = Check the proxy settings to make sure that they are correct: { $proxy }:{ $port }.
error-certificate-text =
    { $reason ->
        [expired] The certificate of { $host } expired on { DATETIME($when, dateStyle: "medium") }.
        [unknown-issuer] { $host } uses a certificate of an unknown issuer.
       *[other] The certificate of { $host } is not valid.
    }
error-code = Error code: { $code }
    .label = Copy the code { "{" }{ $code }{ "}" }
-brand = Kestrel
