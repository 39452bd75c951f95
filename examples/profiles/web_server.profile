# A web server in the manner of nginx, with sites below /var/www and scripts by PHP.
profile web_server {
  # Settings and sites.
  /etc/nginx/ r,
  /etc/nginx/** r,
  /etc/nginx/{conf.d,modules-enabled,sites-enabled,snippets}/{,*.conf} r,
  /etc/{group,hosts,host.conf,nsswitch.conf,passwd,resolv.conf,services,mime.types} r,
  /etc/localtime r,
  /usr/share/nginx/{html,modules-available}/{,**} r,
  /usr/share/zoneinfo/** r,

  # Certificates, and the keys that belong to them.
  /etc/ssl/{,openssl.cnf,dhparam.pem} r,
  /etc/ssl/certs/{,**} r,
  /etc/ssl/private/*.{key,pem} r,
  /etc/letsencrypt/{live,archive}/*/{cert,chain,fullchain,privkey}*.pem r,
  /etc/letsencrypt/{options-ssl-nginx.conf,ssl-dhparams.pem} r,
  /var/lib/acme/{live,certs,keys}/** r,

  # What is served.
  /var/www/ r,
  /var/www/** r,
  /srv/www/{,**} r,
  /home/*/public_html/{,**} r,
  /usr/share/{javascript,phpmyadmin,wordpress}/{,**} r,
  /var/lib/wordpress/wp-content/{,**} r,
  /var/www/*/{uploads,cache,sessions}/** rw,

  # Bodies of requests, caches and sockets.
  /var/lib/nginx/{body,fastcgi,proxy,scgi,uwsgi}/{,**} rw,
  /var/cache/nginx/{,**} rw,
  /{,var/}run/nginx.pid rwk,
  /{,var/}run/{nginx,php,uwsgi}/*.sock rw,
  /{,var/}run/php/php{,7.[0-4],8.[0-3]}-fpm.sock rw,
  /{,var/}run/lock/nginx.lock.* rwk,

  # Logs.
  /var/log/nginx/ r,
  /var/log/nginx/*.log{,.[0-9]*} rw,
  /var/log/nginx/*/{access,error}.log rw,

  # Modules and libraries.
  /usr/lib/nginx/modules/*.so rm,
  /usr/lib/{x86_64,aarch64}-linux-gnu/**.so* rm,
  /usr/lib/{x86_64,aarch64}-linux-gnu/perl/{,**} r,
  /etc/ld.so.cache r,
  /etc/perl/** r,
  /usr/share/perl{,5}/** r,

  # The kernel.
  /proc/[0-9]*/{cmdline,stat,status,auxv} r,
  /proc/sys/{kernel/random/uuid,net/core/somaxconn} r,
  /proc/sys/kernel/ngroups_max r,
  /sys/devices/system/cpu/{,online} r,
  /dev/{null,random,urandom,log} rw,
  /dev/shm/nginx-* rwk,
  /tmp/{,nginx-,php}?????? rwk,

  # No site shows its own settings, its history or what an editor left.
  deny /var/www/**/.ht* r,
  deny /var/www/**/.{git,svn,hg}/** r,
  deny /{var,srv}/www/**/{wp-config.php,.env} w,
  deny /{var,srv}/www/**.{bak,swp,old,orig} r,
  deny /{var,srv}/www/**~ r,
  deny /etc/ssl/private/** w,
  deny /etc/{shadow,gshadow} rwl,
  deny /var/www/*/uploads/**.{php,phar,phtml,so} rm,
}
