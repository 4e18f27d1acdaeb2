The lanes of what has settled, which `draw --layers` adds below a picture. All places were computed by hand.

A fault gives each of two nodes a token, which it lends. Its eight harms make nine moments. The lanes and the curves of
two nodes end at 328. The lanes of the links, of the tree, of the ring and of the loans stand at 408, 422, 436 and 450.
The page ends at 464. A lane is 8 high in a column in which all of its layer stands.

  $ forged >forged.events
  $ lanes() {
  >     sed -n 's/^<path d="\(M142 [0-9VH]*z\)" fill="#\([0-9a-f]*\)">.*/\2 \1/p' "$1" |
  >         sed 's/^56b4e9/links/; s/^009e73/tree/; s/^cc79a7/ring/; s/^d55e00/loans/'
  > }

In nine columns, each 24 wide from 142 on, a column is a moment.

A link is stable if the copy at its end is what its beginning has staged, as at the start. The third harm changes what
node 0 has staged, and the sixth gives node 1 a copy of that with another token. So the link to node 1 is not stable
from the third harm on. The fourth harm changes the copy at node 0, and the fifth what node 1 has staged, in the same
way. So between those two no link is stable.

With the sixth harm all that is said of both nodes is right, so the tree is reached. Before that node 1 has a wrong copy
of the root's distance, so no distances are right. The token that the sixth harm gives to node 1 is one too many. Only
nodes that are privileged lend.

  $ tokentree draw two.toml forged.events --layers >nine.svg
  $ lanes nine.svg
  links M142 408V400H166V400H190V400H214V404H238V408H262V404H286V404H310V404H334V404H358V408z
  tree M142 422V422H166V422H190V422H214V422H238V422H262V422H286V414H310V414H334V414H358V422z
  ring M142 436V428H166V428H190V428H214V428H238V428H262V428H286V436H310V436H334V436H358V436z
  loans M142 450V442H166V442H190V442H214V442H238V442H262V442H286V442H310V442H334V442H358V450z
  $ grep -o 'height="464" viewBox="[^"]*"' nine.svg
  height="464" viewBox="0 0 800 464"

In at most four columns there are four moments, four and one: at the fifth moment and at the ninth each two of four
columns became one. A column shows what has settled at its last moment. These are the moments after the third harm,
after the seventh, and after the eighth, which is the end.

  $ tokentree draw two.toml forged.events --layers --columns 4 >four.svg
  $ lanes four.svg
  links M142 408V404H166V404H190V404H214V408z
  tree M142 422V422H166V414H190V414H214V422z
  ring M142 436V428H166V436H190V436H214V436z
  loans M142 450V442H166V442H190V442H214V450z
  $ grep -o 'height="464" viewBox="[^"]*"' four.svg
  height="464" viewBox="0 0 800 464"
