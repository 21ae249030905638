int a(int x){return (x+1)*(x+1);} int b(int x){return x*x+2*x+1;}
