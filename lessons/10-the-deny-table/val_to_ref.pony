class C

actor Main
  new create(env: Env) =>
    let a: C iso = C
    let b: C trn = consume a
    let c: C ref = consume b
    let d: C box = c
    let e: C tag = d
    let f: C iso = C
    let g: C trn = consume f
    let h: C val = consume g
    let i: C ref = h
    let j: C tag = h
    let k: C iso = C
    let l: C tag = k
