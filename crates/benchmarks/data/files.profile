profile files {
  /d01/file r,
  /d01/**/file rw,
  /d01/**/file[0-9][0-9][0-9] r,
  /d01/*/conf r,
  /d01/**/data rwk,
  /d01/**/lock rwk,
  /d01/{,**/}log w,
  /aside/ r,
  /aside/** r,
  deny /d01/**/state rw,
  deny /away/** rw,
}
