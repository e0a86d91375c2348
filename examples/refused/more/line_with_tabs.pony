actor Main
	new create(env: Env) =>
		let n: U64 =	true
