class Word
  var text: String = ""

class Sentence
  var words: String = ""

  fun ref add(word: Word) =>
    words = words + " " + word.text

actor Main
  new create(env: Env) =>
    let sentence: Sentence iso = Sentence
    let word: Word = Word
    word.text = "hello"
    sentence.add(word)
    env.out.print(sentence.words)
