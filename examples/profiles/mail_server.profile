# A mail server of two parts: one that takes and sends mail in the manner of Postfix, and one that gives it out in the
# manner of Dovecot.
profile mail_server {
  # Settings of the part that takes mail.
  /etc/postfix/ r,
  /etc/postfix/** r,
  /etc/postfix/{aliases,access,canonical,relocated,sender_canonical,transport,virtual}{,.db,.lmdb} rk,
  /etc/postfix/{main,master,dynamicmaps}.cf{,.d/{,*}} r,
  /etc/{aliases,aliases.db,mailname,mailcap,papersize} r,
  /etc/{group,hosts,host.conf,nsswitch.conf,passwd,resolv.conf,services,localtime,networks} r,
  /etc/{gai.conf,krb5.conf,sasldb2,ldap/ldap.conf,default/nss} r,
  /etc/sasl2/{,smtpd.conf} r,
  /etc/mysql/{my.cnf,conf.d/{,*}} r,

  # The queue. Each file of it is named by letters and digits of its own, in folders of one letter.
  /var/spool/postfix/ r,
  /var/spool/postfix/{active,bounce,corrupt,defer,deferred,flush,hold,incoming,saved}/{,**} rwl,
  /var/spool/postfix/{active,bounce,defer,deferred,flush,incoming}/[0-9A-F]/{,[0-9A-F]*} rwlk,
  /var/spool/postfix/maildrop/{,**} rwlk,
  /var/spool/postfix/pid/{,{inet,unix}.*,master.pid} rwk,
  /var/spool/postfix/private/{,*} rw,
  /var/spool/postfix/private/{auth,dovecot-lmtp,anvil,bounce,defer,discard,error,lmtp,local,proxymap,relay,retry,rewrite,scache,smtp,tlsmgr,trace,verify,virtual} rw,
  /var/spool/postfix/public/{,cleanup,flush,pickup,postlog,qmgr,showq} rw,
  /var/spool/postfix/dev/{log,random,urandom} rw,
  /var/spool/postfix/{etc,lib,usr}/{,**} r,
  /var/spool/postfix/{lib,usr/lib}/**.so* rm,
  /var/lib/postfix/{,*} rwlk,
  /var/lib/postfix/{smtp,smtpd}_scache.{db,lmdb} rwk,
  /var/lib/postfix/{prng_exch,master.lock} rwk,

  # Settings of the part that gives mail out.
  /etc/dovecot/ r,
  /etc/dovecot/** r,
  /etc/dovecot/conf.d/{,[0-9][0-9]-*.conf,auth-*.conf.ext} r,
  /etc/dovecot/dovecot-{dict,ldap,sql}*.conf.ext r,
  /etc/dovecot/private/*.{key,pem} r,
  /usr/share/dovecot/{,**} r,
  /usr/lib/dovecot/{,**} r,
  /usr/lib/dovecot/{modules,sieve}/**.so* rm,

  # Mail boxes: of one folder each, of one file each, and those of users that the system does not know.
  /home/*/{Maildir,Mail,mail}/ rw,
  /home/*/{Maildir,Mail,mail}/** rwlk,
  /home/*/{Maildir,Mail}/{,.*/}{cur,new,tmp}/{,*} rwlk,
  /home/*/.{forward,procmailrc,vacation.msg,vacation.db} r,
  /home/*/{,.}sieve/{,**} rwlk,
  /home/*/.dovecot.{sieve,svbin,sieve.log}* rwlk,
  /var/{mail,spool/mail}/{,*} rwlk,
  /var/{mail,spool/mail}/*.{lock,lock.*} rwlk,
  /var/vmail/{,**} rwlk,
  /var/vmail/*/*/{Maildir/,}{cur,new,tmp}/{,*} rwlk,
  /srv/vmail/{,**} rwlk,

  # Indexes, counters and sockets.
  /var/lib/dovecot/{,**} rwlk,
  /var/lib/dovecot/{instances,mounts,ssl-parameters.dat} rwk,
  /{,var/}run/dovecot/{,**} rwlk,
  /{,var/}run/dovecot/{anvil,auth-client,auth-login,auth-master,auth-userdb,config,director-admin,dns-client,doveadm-server,indexer,indexer-worker,ipc,lmtp,log-errors,master,old-stats,replicator,ssl-params,stats-reader,stats-writer} rw,
  /{,var/}run/dovecot/login/{,*} rw,
  /{,var/}run/dovecot/{token-login,empty,auth-token-secret.dat*}{,/**} rwk,
  /{,var/}run/{saslauthd,opendkim,opendmarc,spamassassin,clamav}/{mux,*.sock,*.ctl} rw,
  /{,var/}run/{mysqld/mysqld.sock,postgresql/.s.PGSQL.[0-9]*,nscd/socket} rw,
  /{,var/}run/systemd/{notify,journal/{dev-log,socket,stdout},resolve/stub-resolv.conf} rw,
  /{,var/}run/utmp rk,

  # Certificates.
  /etc/ssl/{,openssl.cnf,certs/{,**}} r,
  /etc/ssl/private/{ssl-cert-snakeoil,mail,dovecot,postfix}*.{key,pem} r,
  /etc/letsencrypt/{live,archive}/*/{cert,chain,fullchain,privkey}*.pem r,
  /usr/share/ca-certificates/{,**} r,
  /usr/local/share/ca-certificates/{,**} r,
  /proc/sys/crypto/fips_enabled r,

  # Checks of mail: signatures, viruses and spam.
  /etc/{opendkim,opendmarc}.conf r,
  /etc/opendkim/{,keys/{,**},KeyTable,SigningTable,TrustedHosts} r,
  /etc/{spamassassin,amavis,clamav,rspamd}/{,**} r,
  /var/lib/{spamassassin,amavis,clamav,rspamd}/{,**} rwk,
  /usr/share/{spamassassin,perl,perl5,rspamd}/{,**} r,
  /usr/lib/{x86_64,aarch64,i386}-linux-gnu/perl{,5,-base}/{,**} r,
  /usr/lib/{x86_64,aarch64,i386}-linux-gnu/perl{,5,-base}/**.so* rm,
  /etc/perl/{,**} r,

  # Programs, and the libraries that they need.
  /usr/lib/postfix/{,sbin/,bin/}* r,
  /usr/lib/postfix/*.so* rm,
  /usr/lib/{x86_64,aarch64,i386}-linux-gnu/**.so* rm,
  /usr/lib/{x86_64,aarch64,i386}-linux-gnu/{gconv,sasl2,openssl}/{,**} rm,
  /etc/ld.so.{cache,conf,preload} r,
  /etc/ld.so.conf.d/{,*.conf} r,
  /usr/share/{locale,zoneinfo,postfix}/{,**} r,

  # Logs.
  /var/log/{mail,dovecot,procmail,sieve}{,.err,.info,.log,.warn}{,.[0-9]*} rw,
  /var/log/{dovecot,postfix,rspamd,clamav}/{,*} rw,

  # The kernel.
  /proc/[0-9]*/{mounts,stat,status,io,fd/,net/if_inet6,net/tcp,net/tcp6} r,
  /proc/{sys/kernel/{core_pattern,ngroups_max,pid_max},sys/fs/suid_dumpable,loadavg,filesystems} r,
  /proc/net/{if_inet6,tcp,tcp6,unix} r,
  /sys/devices/system/cpu/{,online,possible} r,
  /dev/{null,zero,random,urandom,log,tty} rw,
  /tmp/{postfix,dovecot,sieve,spamassassin,clamav}* rwk,
  /var/tmp/{,**} rwk,

  # Mail goes into boxes, and into nothing else of a user.
  deny /home/*/.{ssh,gnupg,aws,kube}/** rwl,
  deny /home/*/.{bash,zsh,python}_history rw,
  deny /root/.** rwl,
  deny /etc/{shadow,gshadow}{,-} wl,
  deny /etc/postfix/** wl,
  deny /etc/dovecot/** wl,
  deny /etc/ssl/private/** wl,
  deny /var/spool/postfix/**.so* w,
  deny /{home,srv,var}/**.{exe,scr,pif} m,
  deny /sys/firmware/** rw,
}
