class C
class Crate
  var c: C ref = C
actor Main
  new create(env: Env) =>
    let crate: Crate iso = recover Crate end
    let c: C trn = C
    crate.c = consume c
