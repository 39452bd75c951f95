profile passwd {
  /etc/passwd r,
}
