# A database server that keeps its tables below /var/lib, in the manner of MySQL and MariaDB.
profile database {
  # Settings.
  /etc/mysql/ r,
  /etc/mysql/** r,
  /etc/{my,mysql/debian}.cnf r,
  /etc/{group,hosts,hosts.allow,hosts.deny,nsswitch.conf,passwd,resolv.conf,services} r,
  /etc/ssl/{openssl.cnf,certs/{,**}} r,
  /etc/gssapi/mech.d/{,*.conf} r,

  # Tables, logs of transactions, and the sockets.
  /var/lib/mysql/ r,
  /var/lib/mysql/** rwk,
  /var/lib/mysql-files/{,**} rw,
  /var/lib/mysql-keyring/{,**} rw,
  /{,var/}run/mysqld/ r,
  /{,var/}run/mysqld/mysqld{,x}.{pid,sock,sock.lock} rwk,
  /{,var/}run/systemd/notify w,

  # Logs: of errors, of slow queries and of all queries.
  /var/log/mysql/ r,
  /var/log/mysql/** rw,
  /var/log/mysql.{log,err} rw,
  /var/log/mysql/{error,slow,general}.log{,.[0-9],.[0-9].gz} rwk,

  # Plugins, messages and character sets.
  /usr/lib/mysql/plugin/ r,
  /usr/lib/mysql/plugin/*.so* rm,
  /usr/lib/{x86_64,aarch64,i386}-linux-gnu/**.so* rm,
  /usr/share/{mysql,mysql-8.0,mariadb}/{,**} r,
  /usr/share/{zoneinfo,locale}/{,**} r,
  /usr/share/icu/*/*.dat r,

  # Sorting of large results.
  /tmp/ r,
  /tmp/{ib,ML,MY,MD}?????? rwk,
  /tmp/#sql* rwk,
  /var/tmp/** rwk,

  # Memory, disks and processors.
  /proc/{meminfo,cpuinfo,stat} r,
  /proc/[0-9]*/{status,statm,task/[0-9]*/stat} r,
  /sys/devices/system/{cpu,node}/{,**} r,
  /sys/block/{sd[a-z],vd[a-z],nvme[0-9]*}/queue/{rotational,physical_block_size} r,
  /dev/{null,zero,random,urandom,tty} rw,

  # Statements that load files may not reach the secrets of the system.
  deny /etc/{shadow,gshadow,sudoers}{,-} r,
  deny /etc/sudoers.d/** r,
  deny /root/** rwl,
  deny /home/*/.{ssh,gnupg}/** rw,
  deny /var/lib/mysql/**.so{,.*} m,
  deny /sys/firmware/** r,
}
