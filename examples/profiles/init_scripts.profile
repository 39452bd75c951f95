# Scripts that run once while the system starts: they set the clock, the console and the host's name.
profile init_scripts {
  /etc/{adjtime,hostname,default/**} r,
  /etc/init.d/{,**} r,
  /dev/{console,null,rtc[0-9]*,tty,tty[0-9]*} rw,
  /{,var/}run/{init,sendsigs,motd}.d/{,**} rwk,

  # A script changes no other script.
  deny /etc/{init,rc[0-6S]}.d/** wl,
}
