"""Derivations in version 2 of their text, worked out by hand from what a core is made of and from the rules."""

# Of HELLO.
OF_HELLO = b"""\
rcap-derivation 2 2 6
s 6 ref
s 4 val
n text 3 val 3 0 0 0
n local 4 val 3 0 0 0
n get 5 tag 3 0 0 0
n send 0 val 3 0 0 0
n seq 0 val 3 0 0 0
n body - 3 0 0 0
"""

# Of CHAIN: its fields are set one after the other, and what is recovered is consumed.
OF_CHAIN = b"""\
rcap-derivation 2 14 50
s 6 box
s 7 ref
s 7 box
s 8 ref
s 1 val
s 6 ref
s 8 box
s 9 ref
s 5 tag
s 9 ref
s 6 val
s 10 ref
s 4 val
s 6 iso
n prim 0 val 1 0 0 0
n seq 0 val 1 0 0 0
n body - 1 0 0 0
n number 1 val 1 0 0 0
n seq 1 val 1 0 0 0
n body - 1 0 0 0
n local 1 val 7 0 0 0
n this 8 tag 7 0 0 0
n putown - 7 0 0 1
n local 6 ref 7 1 0 0
n this 8 tag 7 1 0 0
n putown - 7 1 0 2
n seq - 7 0 0 3
n body - 7 0 0 3
n this 8 box 1 3 0 0
n get 1 val 1 3 0 0
n this 8 box 1 3 0 0
n get 6 box 1 3 0 0
n call 1 val 1 3 0 0
n arith 1 val 1 3 0 0
n seq 1 val 1 3 0 0
n body - 1 3 0 0
n local 5 tag 3 0 0 0
n this 9 tag 3 0 0 0
n putown - 3 0 0 1
n seq - 3 0 0 1
n body - 3 0 0 1
n local 6 val 3 1 0 0
n call 1 val 3 1 0 0
n builtin 3 val 3 1 0 0
n this 9 ref 3 1 0 0
n get 5 tag 3 1 0 0
n send 0 val 3 1 0 0
n seq 0 val 3 1 0 0
n body - 3 1 0 0
n number 1 val 3 0 0 0
n number 1 val 3 0 0 0
n new 7 ref 3 0 0 0
n new 8 ref 3 0 0 0
n new 8 ref 3 0 0 0
n seq 8 ref 3 0 0 0
n recover 8 iso^ 3 0 0 0
n define - 3 0 4 0
n consume 6 iso^ 7 0 4 0
n local 4 val 3 0 0 0
n get 5 tag 3 0 0 0
n spawn 9 tag 3 0 0 0
n send 0 val 7 0 4 0
n seq 0 val 3 0 0 0
n body - 3 0 0 0
"""

# Of BANK: calls on an account are recovered.
OF_BANK = b"""\
rcap-derivation 2 21 117
s 6 box
s 7 ref
s 3 val
s 7 ref
s 1 val
s 7 ref
s 1 val
s 7 box
s 8 ref
s 5 tag
s 7 iso
s 8 ref
s 1 val
s 8 ref
s 1 val
s 8 tag
s 8 ref
s 9 ref
s 4 val
s 8 tag
s 8 tag
n number 1 val 3 0 0 0
n this 7 tag 3 0 0 0
n putown - 3 0 0 2
n local 3 val 3 2 0 0
n this 7 tag 3 2 0 0
n putown - 3 2 0 1
n seq - 3 0 0 3
n body - 3 0 0 3
n this 7 ref 3 3 0 0
n get 1 val 3 3 0 0
n local 1 val 3 3 0 0
n arith 1 val 3 3 0 0
n this 7 ref 3 3 0 0
n put 1 val 3 3 0 0
n this 7 ref 3 3 0 0
n get 1 val 3 3 0 0
n seq 1 val 3 3 0 0
n body - 3 3 0 0
n local 1 val 3 3 0 0
n this 7 ref 3 3 0 0
n get 1 val 3 3 0 0
n compare 2 val 3 3 0 0
n seq 2 val 3 3 0 0
n this 7 ref 3 3 0 0
n get 1 val 3 3 0 0
n local 1 val 3 3 0 0
n arith 1 val 3 3 0 0
n this 7 ref 3 3 0 0
n put 1 val 3 3 0 0
n truth 2 val 3 3 0 0
n seq 2 val 3 3 0 0
n truth 2 val 3 3 0 0
n seq 2 val 3 3 0 0
n if 2 val 3 3 0 0
n seq 2 val 3 3 0 0
n body - 3 3 0 0
n this 7 box 1 3 0 0
n get 3 val 1 3 0 0
n text 3 val 1 3 0 0
n join 3 val 1 3 0 0
n this 7 box 1 3 0 0
n get 1 val 1 3 0 0
n builtin 3 val 1 3 0 0
n join 3 val 1 3 0 0
n seq 3 val 1 3 0 0
n body - 1 3 0 0
n local 5 tag 7 0 0 0
n this 8 tag 7 0 0 0
n putown - 7 0 0 1
n consume 7 iso^ 7 1 4 0
n this 8 tag 3 1 0 0
n putown - 7 1 4 2
n seq - 7 0 4 3
n body - 7 0 4 3
n local 1 val 3 3 0 0
n this 8 ref 3 3 0 0
n get 7 iso 3 3 0 0
n callrecover 1 val 3 3 0 0
n seq 1 val 3 3 0 0
n body - 3 3 0 0
n local 1 val 7 3 0 0
n this 8 ref 7 3 0 0
n get 7 iso 7 3 0 0
n callrecover 2 val 7 3 0 0
n seq 2 val 7 3 0 0
n local 1 val 7 3 0 0
n local 8 tag 7 3 0 0
n send 0 val 7 3 0 0
n seq 0 val 7 3 0 0
n text 3 val 7 3 0 0
n local 1 val 7 3 0 0
n builtin 3 val 7 3 0 0
n join 3 val 7 3 0 0
n this 8 ref 7 3 0 0
n get 5 tag 7 3 0 0
n send 0 val 7 3 0 0
n seq 0 val 7 3 0 0
n if 0 val 7 3 0 0
n seq 0 val 7 3 0 0
n body - 7 3 0 0
n this 8 ref 1 3 0 0
n get 7 iso 1 3 0 0
n callrecover 3 val 1 3 0 0
n this 8 ref 1 3 0 0
n get 5 tag 1 3 0 0
n send 0 val 1 3 0 0
n seq 0 val 1 3 0 0
n body - 1 3 0 0
n local 4 val 3 0 0 0
n get 5 tag 3 0 0 0
n text 3 val 3 0 0 0
n new 7 iso^ 3 0 0 0
n spawn 8 tag 3 0 0 0
n define - 3 0 4 0
n local 4 val 7 0 0 0
n get 5 tag 7 0 0 0
n text 3 val 7 0 0 0
n new 7 iso^ 7 0 0 0
n spawn 8 tag 7 0 0 0
n define - 7 0 8 0
n number 1 val f 0 0 0
n local 8 tag f 0 0 0
n send 0 val f 0 0 0
n number 1 val f 0 0 0
n local 8 tag f 0 0 0
n local 8 tag f 0 0 0
n send 0 val f 0 0 0
n number 1 val f 0 0 0
n local 8 tag f 0 0 0
n local 8 tag f 0 0 0
n send 0 val f 0 0 0
n local 8 tag f 0 0 0
n send 0 val f 0 0 0
n local 8 tag f 0 0 0
n send 0 val f 0 0 0
n seq 0 val 3 0 0 0
n body - 3 0 0 0
"""

# Of TAKEN: the body of the trait is in its class and in its actor.
OF_TAKEN = b"""\
rcap-derivation 2 8 39
s 6 box
s 7 box
s 7 ref
s 7 box
s 8 ref
s 4 val
s 8 box
s 8 box
n text 3 val 1 1 0 0
n seq 3 val 1 1 0 0
n body - 1 1 0 0
n text 3 val 1 0 0 0
n this 7 tag 1 0 0 0
n putown - 1 0 0 1
n prim 0 val 1 1 0 0
n seq 0 val 1 0 0 1
n body - 1 0 0 1
n this 7 box 1 1 0 0
n get 3 val 1 1 0 0
n this 7 box 1 1 0 0
n call 3 val 1 1 0 0
n join 3 val 1 1 0 0
n seq 3 val 1 1 0 0
n body - 1 1 0 0
n text 3 val 3 0 0 0
n this 8 tag 3 0 0 0
n putown - 3 0 0 1
n new 7 iso^ 3 1 0 0
n call 3 val 3 1 0 0
n this 8 ref 3 1 0 0
n call 3 val 3 1 0 0
n join 3 val 3 1 0 0
n local 4 val 3 1 0 0
n get 5 tag 3 1 0 0
n send 0 val 3 1 0 0
n seq 0 val 3 0 0 1
n body - 3 0 0 1
n text 3 val 1 1 0 0
n seq 3 val 1 1 0 0
n body - 1 1 0 0
n this 8 box 1 1 0 0
n get 3 val 1 1 0 0
n this 8 box 1 1 0 0
n call 3 val 1 1 0 0
n join 3 val 1 1 0 0
n seq 3 val 1 1 0 0
n body - 1 1 0 0
"""
