// Opens 1 MiB by AES-128-CBC with T-tables.
#include <stdint.h>
#include <stdio.h>
#include <stdlib.h>
#include <string.h>
#include <time.h>
static uint8_t S[256], I[256];
static uint32_t Te[4][256], Td[4][256];
static uint8_t mul(uint8_t a, uint8_t b){uint8_t r=0;while(a){if(a&1)r^=b;b=(b<<1)^((b>>7)*0x1b);a>>=1;}return r;}
static void tables(void){
  for(int a=0;a<256;a++){uint8_t v=0;for(int b=0;b<256;b++)if(mul(a,b)==1)v=b;
    uint8_t r=0x63;for(int i=0;i<5;i++)r^=(uint8_t)((v<<i)|(v>>(8-i)));S[a]=r;I[r]=a;}
  for(int x=0;x<256;x++){
    uint8_t s=S[x],i=I[x];
    uint32_t e=(uint32_t)mul(2,s)<<24|s<<16|s<<8|mul(3,s);
    uint32_t d=(uint32_t)mul(14,i)<<24|mul(9,i)<<16|mul(13,i)<<8|mul(11,i);
    for(int r=0;r<4;r++){Te[r][x]=r?(e>>8*r|e<<(32-8*r)):e;Td[r][x]=r?(d>>8*r|d<<(32-8*r)):d;}
  }}
static uint32_t load(const uint8_t*p){return (uint32_t)p[0]<<24|p[1]<<16|p[2]<<8|p[3];}
static void store(uint8_t*p,uint32_t w){p[0]=w>>24;p[1]=w>>16;p[2]=w>>8;p[3]=w;}
static uint32_t ek[44],dk[44];
static void keys(const uint8_t*key){
  for(int i=0;i<4;i++)ek[i]=load(key+4*i);
  uint8_t rc=1;
  for(int i=4;i<44;i++){uint32_t t=ek[i-1];
    if(i%4==0){t=t<<8|t>>24;t=(uint32_t)S[t>>24]<<24|S[t>>16&255]<<16|S[t>>8&255]<<8|S[t&255];t^=(uint32_t)rc<<24;rc=(rc<<1)^((rc>>7)*0x1b);}
    ek[i]=ek[i-4]^t;}
  for(int r=0;r<=10;r++)for(int c=0;c<4;c++){uint32_t w=ek[4*(10-r)+c];
    if(r&&r<10)w=Td[0][S[w>>24]]^Td[1][S[w>>16&255]]^Td[2][S[w>>8&255]]^Td[3][S[w&255]];
    dk[4*r+c]=w;}}
static void seal(const uint8_t*in,uint8_t*out){
  uint32_t a=load(in)^ek[0],b=load(in+4)^ek[1],c=load(in+8)^ek[2],d=load(in+12)^ek[3];
  const uint32_t*k=ek+4;
  for(int r=0;r<9;r++,k+=4){
    uint32_t w=Te[0][a>>24]^Te[1][b>>16&255]^Te[2][c>>8&255]^Te[3][d&255]^k[0];
    uint32_t x=Te[0][b>>24]^Te[1][c>>16&255]^Te[2][d>>8&255]^Te[3][a&255]^k[1];
    uint32_t y=Te[0][c>>24]^Te[1][d>>16&255]^Te[2][a>>8&255]^Te[3][b&255]^k[2];
    uint32_t z=Te[0][d>>24]^Te[1][a>>16&255]^Te[2][b>>8&255]^Te[3][c&255]^k[3];
    a=w;b=x;c=y;d=z;}
#define L(T,a,b,c,d) ((uint32_t)T[a>>24]<<24|T[b>>16&255]<<16|T[c>>8&255]<<8|T[d&255])
  store(out,L(S,a,b,c,d)^k[0]);store(out+4,L(S,b,c,d,a)^k[1]);store(out+8,L(S,c,d,a,b)^k[2]);store(out+12,L(S,d,a,b,c)^k[3]);}
static void open_(const uint8_t*in,uint8_t*out){
  uint32_t a=load(in)^dk[0],b=load(in+4)^dk[1],c=load(in+8)^dk[2],d=load(in+12)^dk[3];
  const uint32_t*k=dk+4;
  for(int r=0;r<9;r++,k+=4){
    uint32_t w=Td[0][a>>24]^Td[1][d>>16&255]^Td[2][c>>8&255]^Td[3][b&255]^k[0];
    uint32_t x=Td[0][b>>24]^Td[1][a>>16&255]^Td[2][d>>8&255]^Td[3][c&255]^k[1];
    uint32_t y=Td[0][c>>24]^Td[1][b>>16&255]^Td[2][a>>8&255]^Td[3][d&255]^k[2];
    uint32_t z=Td[0][d>>24]^Td[1][c>>16&255]^Td[2][b>>8&255]^Td[3][a&255]^k[3];
    a=w;b=x;c=y;d=z;}
  store(out,L(I,a,d,c,b)^k[0]);store(out+4,L(I,b,a,d,c)^k[1]);store(out+8,L(I,c,b,a,d)^k[2]);store(out+12,L(I,d,c,b,a)^k[3]);}
#define N (1<<20)
static double now(void){struct timespec t;clock_gettime(CLOCK_PROCESS_CPUTIME_ID,&t);return t.tv_sec+t.tv_nsec/1e9;}
int main(void){
  tables();
  uint8_t key[16],iv[16];memset(key,7,16);memset(iv,9,16);
  uint8_t*p=malloc(N),*s=malloc(N),*o=malloc(N);memset(p,5,N);p[N-1]=1;
  int rounds=200;unsigned total=0;
  double t0=now();
  for(int r=0;r<rounds;r++){keys(key);const uint8_t*v=iv;
    for(size_t i=0;i<N;i+=16){uint8_t x[16];for(int j=0;j<16;j++)x[j]=p[i+j]^v[j];seal(x,s+i);v=s+i;}total+=s[N-1];}
  double t1=now();
  for(int r=0;r<rounds;r++){keys(key);const uint8_t*v=iv;
    for(size_t i=0;i<N;i+=16){uint8_t x[16];open_(s+i,x);for(int j=0;j<16;j++)o[i+j]=x[j]^v[j];v=s+i;}
    if(memcmp(o,p,N))return 1;total+=o[N-1];}
  double t2=now();
  printf("C: seal %.1f MiB/s, open %.1f MiB/s (%u)\n",rounds/(t1-t0),rounds/(t2-t1),total);
}
