// A block in Java, by JNA. A struct is an array of octets with the offsets of um.h; a bool and an answer are a byte:
// java -cp /usr/share/java/jna.jar examples/other/Block.java
import com.sun.jna.Library;
import com.sun.jna.Native;

public class Block {
  public interface Um extends Library {
    Um CALLS = Native.load(System.getProperty("user.dir") + "/dist/x86_64-linux/libum.so.0", Um.class);
    byte um_send_block(byte[] octets, byte tsc, byte[] bursts);
    byte um_receive_block(byte[] bursts, byte[] report);
  }

  public static void main(String[] words) {
    byte[] octets = new byte[23], bursts = new byte[592], report = new byte[268];
    if (Um.CALLS.um_send_block(octets, (byte) 5, bursts) != 1) throw new IllegalStateException("um_send_block");
    for (int i = 0; i < 592; i++) bursts[i] = (byte) (bursts[i] == 0 ? 127 : -127);
    bursts[158] = (byte) -bursts[158];
    if (Um.CALLS.um_receive_block(bursts, report) != 1 || report[13] != 1) throw new IllegalStateException("um_receive_block");
    System.out.println("tsc " + report[12] + ", " + report[8] + " wrong bit");
  }
}
