;; alignment: an alignment of 8 for four bytes
(assert_invalid (module
(import "env" "putchar" (func $putchar (param i32)))
(memory 1)
(func (export "main") (call $putchar (i32.const 65)) (drop (i32.load align=8 (i32.const 0))))) "alignment must not be larger than natural")
