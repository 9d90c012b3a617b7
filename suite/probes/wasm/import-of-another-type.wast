;; import-of-another-type: putchar with a result
(assert_unlinkable (module (import "env" "putchar" (func (param i32) (result i32)))
(func (export "main") (drop (call 0 (i32.const 65))))) "incompatible import type")
