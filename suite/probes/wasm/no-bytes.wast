;; no-bytes: a file of no byte
(assert_malformed (module binary "") "unexpected end")
