# A viewer of pictures: a path for a name, quotes, groups, classes and both orders of a rule.
/usr/bin/viewer {
  /usr{,/local}/lib/lib[a-z]*.so* rm,  # libraries
  "/home/*/Pictures/Summer [0-9][0-9]/**" r,
  deny rw /home/*/{.ssh,.gnupg}/**,
  w /home/*/.cache/viewer/{,**},
}
