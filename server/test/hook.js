// A hook of access that knows users by a cookie.

export async function access({request}) {
  const [, user] = /(?:^|; )user=([a-z]+)/.exec(request.headers.cookie ?? "") ?? []
  return user ? {right: "write", user, name: `${user[0].toUpperCase()}${user.slice(1)}`} : null
}
