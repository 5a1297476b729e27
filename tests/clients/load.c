// load PORT INSTANCE SECONDS call|write|read|tree N [HASH SIZE]: loads over raw HTTP/2 and gRPC
#define _GNU_SOURCE
#include <arpa/inet.h>
#include <errno.h>
#include <netinet/in.h>
#include <netinet/tcp.h>
#include <pthread.h>
#include <stdatomic.h>
#include <stdint.h>
#include <stdio.h>
#include <stdlib.h>
#include <string.h>
#include <sys/socket.h>
#include <time.h>
#include <unistd.h>
static int port, seconds; static char *inst, *hash_of, *size_of; static double until;
static _Atomic long bytes_done, calls_done;
static double now(void){struct timespec t;clock_gettime(CLOCK_MONOTONIC,&t);return t.tv_sec+t.tv_nsec/1e9;}
struct conn{int fd;unsigned char buf[1<<18];int have;long cwin,swin;int stream;int ended;long got,all;};
static void die(const char*s){perror(s);exit(1);}
static void sendall(int fd,const void*p,size_t n){const char*c=p;while(n){ssize_t k=send(fd,c,n,MSG_NOSIGNAL);if(k<=0)die("send");c+=k;n-=k;}}
static int head(unsigned char*o,int len,int kind,int flags,int stream){o[0]=len>>16;o[1]=len>>8;o[2]=len;o[3]=kind;o[4]=flags;o[5]=stream>>24;o[6]=stream>>16;o[7]=stream>>8;o[8]=stream;return 9;}
static int block(unsigned char*o,const char*path){int n=0;o[n++]=0x83;o[n++]=0x86;o[n++]=0x04;int l=strlen(path);o[n++]=l;memcpy(o+n,path,l);n+=l;const unsigned char r[]="\x0f\x10\x10" "application/grpc" "\x00\x02te\x08" "trailers";memcpy(o+n,r,sizeof r-1);return n+sizeof r-1;}
static void copen(struct conn*c){c->fd=socket(AF_INET,SOCK_STREAM,0);struct sockaddr_in a={.sin_family=AF_INET,.sin_port=htons(port)};a.sin_addr.s_addr=htonl(INADDR_LOOPBACK);if(connect(c->fd,(void*)&a,sizeof a))die("connect");int one=1;setsockopt(c->fd,IPPROTO_TCP,TCP_NODELAY,&one,sizeof one);
 unsigned char o[128];int n=0;memcpy(o,"PRI * HTTP/2.0\r\n\r\nSM\r\n\r\n",24);n=24;n+=head(o+n,6,4,0,0);o[n++]=0;o[n++]=4;o[n++]=0x7f;o[n++]=255;o[n++]=255;o[n++]=255;n+=head(o+n,4,8,0,0);uint32_t w=0x7fffffff-65535;o[n++]=w>>24;o[n++]=w>>16;o[n++]=w>>8;o[n++]=w;sendall(c->fd,o,n);c->have=0;c->cwin=65535;c->stream=1;}
// reads at least once and handles frames
static void take(struct conn*c){ssize_t k=recv(c->fd,c->buf+c->have,sizeof c->buf-c->have,0);if(k<=0){fprintf(stderr,"closed\n");exit(1);}c->have+=k;int at=0;
 while(c->have-at>=9){unsigned char*f=c->buf+at;int len=f[0]<<16|f[1]<<8|f[2];if(c->have-at<9+len)break;int st=(f[5]&127)<<24|f[6]<<16|f[7]<<8|f[8];
  if(f[3]==8){uint32_t w=f[9]<<24|f[10]<<16|f[11]<<8|f[12];if(st==0)c->cwin+=w;else if(st==c->stream)c->swin+=w;}
  else if(f[3]==7){fprintf(stderr,"goaway %d\n",f[16]);exit(1);}
  else if((f[3]==1||f[3]==3)&&st==c->stream&&(f[3]==3||f[4]&1))c->ended=1;
  else if(f[3]==0&&st==c->stream){c->got+=len;c->all+=len;}
  at+=9+len;}
 memmove(c->buf,c->buf+at,c->have-at);c->have-=at;}
static int varint(unsigned char*o,uint64_t v){int n=0;while(v>127){o[n++]=v|128;v>>=7;}o[n++]=v;return n;}
static void*writer(void*arg){struct conn*c=calloc(1,sizeof*c);copen(c);unsigned seed=(uintptr_t)arg*77+time(0);const int size=1<<20,part=1<<17;unsigned char*data=malloc(size);for(int i=0;i<size;i+=4)*(int*)(data+i)=rand_r(&seed);
 unsigned char*msg=malloc(part+600);
 while(now()<until){unsigned char o[600];int n=0;int bn;unsigned char b[300];bn=block(b,"/google.bytestream.ByteStream/Write");n+=head(o,bn,1,4,c->stream);memcpy(o+n,b,bn);n+=bn;sendall(c->fd,o,n);c->swin=65535;c->ended=0;
  char name[300];char hash[65];for(int i=0;i<64;i++)hash[i]="0123456789abcdef"[rand_r(&seed)&15];hash[64]=0;
  int nl=sprintf(name,"%s/uploads/%08x-0000-4000-8000-%012x/blobs/%s/%d",inst,rand_r(&seed),rand_r(&seed)&0xffffff,hash,size);
  for(int off=0;off<size&&!c->ended;off+=part){int m=5;if(off==0){msg[m++]=0x0a;m+=varint(msg+m,nl);memcpy(msg+m,name,nl);m+=nl;}
   if(off){msg[m++]=0x10;m+=varint(msg+m,off);} if(off+part>=size){msg[m++]=0x18;msg[m++]=1;}
   msg[m++]=0x52;m+=varint(msg+m,part);memcpy(msg+m,data+off,part);m+=part;int l=m-5;msg[0]=0;msg[1]=l>>24;msg[2]=l>>16;msg[3]=l>>8;msg[4]=l;
   for(int at=0;at<m&&!c->ended;){int p=m-at<16384?m-at:16384;int last=off+part>=size&&at+p==m;
     while((c->cwin<p||c->swin<p)&&!c->ended)take(c);
     if(c->ended)break;
     unsigned char h[9];head(h,p,0,last,c->stream);
     struct iovec{void*a;size_t b;};sendall(c->fd,h,9);sendall(c->fd,msg+at,p);c->cwin-=p;c->swin-=p;at+=p;if(now()<until)bytes_done+=p;}}
  while(!c->ended)take(c);
  c->stream+=2;}
 return 0;}
// one call after another, of which many bytes come back
static void ask(struct conn*c,const char*path,const unsigned char*message,int size){unsigned char o[1024],b[300];int m=0,bn=block(b,path);
 m+=head(o,bn,1,4,c->stream);memcpy(o+m,b,bn);m+=bn;m+=head(o+m,5+size,0,1,c->stream);memset(o+m,0,4);m+=4;o[m++]=size;memcpy(o+m,message,size);m+=size;
 c->ended=0;sendall(c->fd,o,m);while(!c->ended)take(c);c->stream+=2;
 if(c->all>1<<29){unsigned char w[13];int n=head(w,4,8,0,0);w[n++]=c->all>>24;w[n++]=c->all>>16;w[n++]=c->all>>8;w[n++]=c->all;sendall(c->fd,w,n);c->all=0;}}
static void*reader(void*arg){struct conn*c=calloc(1,sizeof*c);copen(c);char name[200];unsigned char message[256];int n=0,l=sprintf(name,"%s/blobs/%s/%s",inst,hash_of,size_of);
 message[n++]=0x0a;message[n++]=l;memcpy(message+n,name,l);n+=l;
 while(now()<until){c->got=0;ask(c,"/google.bytestream.ByteStream/Read",message,n);if(now()<until)bytes_done+=c->got;}return arg;}
static void*trees(void*arg){struct conn*c=calloc(1,sizeof*c);copen(c);unsigned char message[256],digest[100];int n=0,d=0,il=strlen(inst);
 digest[d++]=0x0a;digest[d++]=64;memcpy(digest+d,hash_of,64);d+=64;digest[d++]=0x10;d+=varint(digest+d,atol(size_of));
 message[n++]=0x0a;message[n++]=il;memcpy(message+n,inst,il);n+=il;message[n++]=0x12;message[n++]=d;memcpy(message+n,digest,d);n+=d;
 while(now()<until){ask(c,"/build.bazel.remote.execution.v2.ContentAddressableStorage/GetTree",message,n);calls_done++;}return arg;}
static int cmp(const void*a,const void*b){double x=*(double*)a,y=*(double*)b;return x<y?-1:x>y;}
static void caller(int n){struct conn*c=calloc(1,sizeof*c);copen(c);double*t=malloc(sizeof(double)*20000000);long k=0;double begun=now();
 unsigned char o[600],b[300];int bn=block(b,"/build.bazel.remote.execution.v2.Capabilities/GetCapabilities");int il=strlen(inst);
 while(now()<until&&k<20000000){int m=0;m+=head(o,bn,1,4,c->stream);memcpy(o+m,b,bn);m+=bn;m+=head(o+m,5+2+il,0,1,c->stream);o[m++]=0;o[m++]=0;o[m++]=0;o[m++]=0;o[m++]=2+il;o[m++]=0x0a;o[m++]=il;memcpy(o+m,inst,il);m+=il;
  c->ended=0;double at=now();sendall(c->fd,o,m);while(!c->ended)take(c);t[k++]=now()-at;c->stream+=2;}
 double took=now()-begun;qsort(t,k,sizeof*t,cmp);printf("call/s %.0f p50 %.0f us p99 %.0f us max %.1f ms\n",k/took,t[k/2]*1e6,t[(long)(k*.99)]*1e6,t[k-1]*1e3);}
int main(int argc,char**argv){port=atoi(argv[1]);inst=argv[2];seconds=atoi(argv[3]);until=now()+seconds;int n=atoi(argv[5]);
 if(!strcmp(argv[4],"call")){caller(n);return 0;}
 if(argc>7){hash_of=argv[6];size_of=argv[7];}
 int is_write=!strcmp(argv[4],"write"),is_tree=!strcmp(argv[4],"tree");void*(*of)(void*)=is_write?writer:is_tree?trees:reader;
 pthread_t th[64];for(int i=0;i<n;i++)pthread_create(&th[i],0,of,(void*)(uintptr_t)(i+1));for(int i=0;i<n;i++)pthread_join(th[i],0);
 if(is_tree)printf("tree/s %.1f\n",(double)calls_done/seconds);else printf("%s %.1f MB/s\n",argv[4],bytes_done/1e6/seconds);}
