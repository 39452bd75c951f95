# A name server in the manner of BIND: zones from /etc/bind, caches and journals below /var.
profile dns_server {
  # Settings, keys and hand-written zones.
  /etc/bind/{,**} r,
  /etc/bind/*.key r,
  /etc/default/named r,
  /etc/krb5.keytab r,
  /etc/ssl/openssl.cnf r,
  /etc/{services,protocols,nsswitch.conf,resolv.conf,hosts,localtime} r,

  # Zones that are transferred or signed, with their journals.
  /var/lib/bind/ rw,
  /var/lib/bind/** rw,
  /var/cache/bind/ rw,
  /var/cache/bind/** rwl,
  /var/cache/bind/*.{jnl,jbk,nzd,nzd-lock} rwk,
  /var/cache/bind/_default.{nzd,nzf}* rwk,

  # Logs, the statistics and the dump of the cache.
  /var/log/named/ rw,
  /var/log/named/** rw,
  /var/log/named.log{,.[0-9]*} rw,
  /{,var/}run/named/{named,session}.{pid,key,lock} rwk,
  /{,var/}run/slapd-*.socket rw,
  /tmp/{krb5cc,DNS}_[0-9]* rwk,
  /var/tmp/{krb5cc,DNS}_[0-9]* rwk,

  # What the kernel tells of ports and of processors.
  /proc/net/if_inet6 r,
  /proc/[0-9]*/net/{if_inet6,route,psched} r,
  /proc/sys/net/ipv4/ip_local_port_range r,
  /sys/devices/system/cpu/{,online,possible,cpu[0-9]*/**} r,
  /sys/kernel/mm/transparent_hugepage/{enabled,hpage_pmd_size} r,

  # Libraries and plugins.
  /usr/lib/{,x86_64-linux-gnu/,aarch64-linux-gnu/}**.so* rm,
  /usr/lib/x86_64-linux-gnu/bind/*.so rm,
  /usr/share/{dns,GeoIP,locale,zoneinfo}/{,**} r,
  /etc/ld.so.{cache,conf,preload} r,
  /dev/{null,urandom,random,log} rw,

  # The keys of zones are made elsewhere.
  deny /etc/bind/**.private w,
  deny /etc/bind/rndc.key wl,
  deny /var/lib/bind/keys/** wl,
}
