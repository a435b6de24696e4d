import bcsproved.BcsException;
import bcsproved.Hex;
import bcsproved.Names;
import bcsproved.Registry;
import bcsproved.Variant;
import java.io.ByteArrayOutputStream;
import java.nio.charset.StandardCharsets;
import java.nio.file.Files;
import java.nio.file.Path;
import java.security.KeyPair;
import java.security.KeyPairGenerator;
import java.security.MessageDigest;
import java.security.Signature;
import java.util.Arrays;
import java.util.HexFormat;
import java.util.List;
import java.util.Map;

/** A wallet signs a transfer on Aptos, and shows what it signed: {@code java Wallet EXAMPLES}. */
public final class Wallet {
    private static Map<String, ?> transfer(String sender, String to, byte[] amount) {
        Map<String, ?> coin = Map.of("address", "0x1", "module", "aptos_coin", "name", "AptosCoin", "type_args", List.of());
        Map<String, ?> call = Map.of("module", Map.of("address", "0x1", "name", "coin"), "function", "transfer",
                "ty_args", List.of(new Variant("Struct", coin)), "args", List.of(new Hex(to), amount));
        return Map.of("sender", sender, "sequence_number", 11, "payload", new Variant("EntryFunction", call), "max_gas_amount", 2000,
                "gas_unit_price", 1, "expiration_timestamp_secs", 1234567890, "chain_id", 4);
    }

    /** Signs as Aptos does: the bytes behind the hash of this name. */
    private static byte[] signed(byte[] data) throws Exception {
        ByteArrayOutputStream message = new ByteArrayOutputStream();
        message.write(MessageDigest.getInstance("SHA3-256").digest("APTOS::RawTransaction".getBytes(StandardCharsets.US_ASCII)));
        message.write(data);
        KeyPair keys = KeyPairGenerator.getInstance("Ed25519").generateKeyPair();
        Signature signature = Signature.getInstance("Ed25519");
        signature.initSign(keys.getPrivate());
        signature.update(message.toByteArray());
        return signature.sign();
    }

    public static void main(String[] arguments) throws Exception {
        String json = Files.readString(Path.of(arguments[0]).resolve("aptos_registry.json"));
        try (Registry registry = Registry.open(json, Names.STANDARD.withAddresses("AccountAddress"))) {
            byte[] amount = registry.encode("\"U64\"", 5000);
            byte[] data = registry.encode("RawTransaction", transfer("0x7deeccb1080854f499ec8b4c1b213b82c5e34b925cf6875fec02d4b77adbd2d6",
                    "2d133ddd281bb6205558357cc6ac75661817e9aaeac3afebc32842759cbf7fa9", amount));
            System.out.println(HexFormat.of().formatHex(data));
            System.out.println(signed(data).length);
            System.out.println(registry.decodeJson("RawTransaction", data));
            registry.decode("RawTransaction", Arrays.copyOf(data, 100));
        } catch (BcsException e) {
            System.out.println(e.reason() + " " + e.place() + " " + e.at());
        }
    }
}
