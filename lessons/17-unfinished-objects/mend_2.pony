class Branch
  let _tree: Tree ref

  new create(tree: Tree ref) =>
    _tree = tree

  fun is_of(tree: Tree box): Bool =>
    _tree is tree

class Tree
  let branch: Branch ref

  new create() =>
    branch = Branch(this)

actor Main
  new create(env: Env) =>
    let tree: Tree ref = Tree
    env.out.print(tree.branch.is_of(tree).string())
