profile home {
  /home/*/** rw,
  deny /home/*/.ssh/** w,
  deny /home/*/.ssh/id_* r,
  /tmp/* rwk,
}
