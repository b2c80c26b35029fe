"""Not proved (../README.md). How the page looks: on white and on dark, on small windows, without colours."""

STYLE = """
:root{color-scheme:light dark;--back:#fff;--text:#1d1f23;--soft:#5b6169;--line:#d5d9de;--code:#f4f5f7;--par:#1a7f37;--par-back:#dcf3e2;
--mix:#6a5b00;--mix-back:#f5efcf;--ser:#b1361e;--ser-back:#fbe6e0;--link:#0b57d0}
@media (prefers-color-scheme:dark){:root{--back:#15181c;--text:#e4e7eb;--soft:#a0a8b2;--line:#343a42;--code:#1e2329;--par:#6fd48c;
--par-back:#163423;--mix:#e0cf7a;--mix-back:#37321a;--ser:#f39a84;--ser-back:#40211a;--link:#8ab4f8}}
*{box-sizing:border-box}
body{margin:0;background:var(--back);color:var(--text);font:15px/1.5 system-ui,sans-serif}
a{color:var(--link)}
a:focus-visible,summary:focus-visible,[tabindex]:focus-visible{outline:3px solid var(--link);outline-offset:2px}
.skip{position:absolute;left:-999px}
.skip:focus{left:8px;top:8px;background:var(--back);padding:4px 10px;z-index:2}
header{padding:16px 22px;border-bottom:1px solid var(--line)}
h1{font-size:20px;margin:0 0 6px}
h2{font-size:16px;margin:14px 0 6px}
h3{font-size:15px;margin:0}
p{margin:4px 0}
h1,h2,h3,p,aside li{overflow-wrap:anywhere}
.soft{color:var(--soft);font-size:13px}
.bar{display:flex;height:22px;max-width:900px;margin:10px 0 4px;border:1px solid var(--line);border-radius:4px;overflow:hidden}
.bar span{font-size:12px;line-height:20px;text-align:center;overflow:hidden;white-space:nowrap;color:var(--text);border-right:1px solid var(--line)}
.bar span:last-child{border:0}
main{display:grid;grid-template-columns:minmax(0,3fr) minmax(300px,2fr)}
.code{border-right:1px solid var(--line);overflow-x:auto;padding:6px 0}
.code h2{padding:0 16px}
.code ol{list-style:none;margin:0;padding:0;font:13px/1.5 ui-monospace,Menlo,Consolas,monospace;min-width:max-content}
.code li{display:grid;grid-template-columns:52px 78px 1fr;min-height:1.5em;border-left:5px solid transparent}
.code li>span:last-child{white-space:pre;padding-right:16px}
.code .n{color:var(--soft);text-align:right;padding-right:12px;user-select:none}
.code .s{color:var(--soft);font-size:12px}
.in-par{border-left-color:var(--par)!important}
.in-mix{border-left-color:var(--mix)!important}
.in-ser{border-left-color:var(--ser)!important}
.par{background:var(--par-back)}
.mix{background:var(--mix-back)}
.ser{background:var(--ser-back)}
.code li.why>span:last-child{text-decoration:underline dashed var(--ser);text-underline-offset:3px}
aside{padding:8px 18px 30px}
.card{border:1px solid var(--line);border-left:6px solid;border-radius:5px;padding:8px 12px;margin:10px 0}
.card.par{background:none;border-left-color:var(--par)}
.card.mix{background:none;border-left-color:var(--mix)}
.card.ser{background:none;border-left-color:var(--ser)}
.state{font-weight:600}
.card.par .state{color:var(--par)}
.card.mix .state{color:var(--mix)}
.card.ser .state{color:var(--ser)}
.card code{background:var(--code);padding:1px 4px;border-radius:3px;overflow-wrap:anywhere}
:target{outline:2px solid var(--link)}
.scroll{overflow-x:auto}
table{border-collapse:collapse;font-size:12px;margin:6px 0}
td,th{border:1px solid var(--line);padding:1px 6px;text-align:center;font-weight:normal;white-space:nowrap}
tbody th{text-align:left}
td.yes{background:var(--par-back)}
td.no{background:var(--ser-back)}
@media (min-width:1000px){aside{position:sticky;top:0;max-height:100vh;overflow:auto}}
@media (max-width:900px){main{grid-template-columns:minmax(0,1fr)}.code{border-right:0;border-bottom:1px solid var(--line)}
.code li{grid-template-columns:44px 62px 1fr}}
@media print{aside{position:static}.code{overflow:visible}}
"""
