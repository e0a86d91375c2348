// Refused: nowhere to begin.
class Cat
