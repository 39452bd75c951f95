profile served {
  /srv/** r,
  /srv/log/* rw,
  deny /srv/log/old w,
}
