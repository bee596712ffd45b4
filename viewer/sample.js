// 32 by 32 samples of the photograph, as `jk encode --raw --levels 3` writes them: what a worker decodes before it is
// asked for anything.

const TEXT = '/0//UQApAAAAAAAgAAAAIAAAAAAAAAAAAAAAIAAAACAAAAAAAAAAAAABBwEB/1IADAAAAAEAAwQEAAH/XAANQEBISFBISFBISFD/'
  + 'kAAKAAAAAAIqAAH/k8fUGhJKPmAU55orTSYzAg/AfCVB842B84wM34aQtJ7M1t9fABAHb9/U8BOsGYRNPyKIHkXV9Ehci1m8z8D5'
  + 'EUHzqoHzpyn3VSIhDqUt0D3Xz52NFChQ6f8kdHWgBl5B/TERkMkVzSQXUmCI2ZW/Gj1SdI02q1dylaBXU25cu5rBlqdVH2OK5kYy'
  + 'pNkeLRH2+VtZ4BFZM2KkEwVcqwuVqi5aCfkZst3bgIAr4x9jUKPdnox+NGv8g2fA+S1wPk0DAfJbQJvgdnlKYmFQhcDeV141wPH6'
  + 'sxdd2csrBgimCh7zaDVJBDbX0ZjhOxZ1/3SXhNSYPAOTqqAdFZjL2VEtV4dJWPH1oI9B1oIlofCgZCMqrXtAxfPJHGEyUhv2G8EV'
  + 'BYLRGfwyLDbGTzWIxZQZmRSk1NGdUdIH4mESslyU03FcXbjySrqCasG/62p4U6LXsjkcSldoZ1l04xWXYd4e0WqMdv4SwTSgSXEM'
  + 'f90HMWVVm/UZcrgoqdSUGFocsNVw/cduErL+XJLCc5b0SFoDZUBsOAN/zkj3V84yNFa90/r2HZiLe8WVDHVPhtUN5g+/m+B3FZ3Q'
  + '4DJjnQOX01dzf53rwiP1qJyWMDXHMGW7PM16BbopjqgrmJWbSk+trobT1cVi4xoimzS9MBxCn0ZV96tLXoeZUGstF7mRM+sKhsSU'
  + 'bk8212D1XIAM+THU+whVYThdrc9C8XOI8CKOF//Z';

export const SAMPLE = Uint8Array.from(atob(TEXT), (letter) => letter.charCodeAt(0));
