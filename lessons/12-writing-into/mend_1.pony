class Photo
  var likes: U64 = 0

class Album
  var cover: Photo box = Photo

actor Main
  new create(env: Env) =>
    let album: Album trn = Album
    let photo: Photo trn = Photo
    photo.likes = 2
    album.cover = photo
    let shown: Album val = consume album
    env.out.print(shown.cover.likes.string())
