# Decodes each picture of the file IN (width, height as 16-bit numbers, then its words or blocks) by Godot's decompressor of FORMAT,
# pvrtc or bc7, and writes its bytes R, G, B, A to the file OUT: godot3-server -s decode.gd FORMAT IN OUT
extends SceneTree

func _init():
	var names = OS.get_cmdline_args()
	var input = File.new()
	var output = File.new()
	if input.open(names[names.size() - 2], File.READ) != OK or output.open(names[names.size() - 1], File.WRITE) != OK:
		print("cannot open ", names)
		quit(1)
		return
	var bc7 = names[names.size() - 3] == "bc7"
	while input.get_position() < input.get_len():
		var width = input.get_16()
		var height = input.get_16()
		var words = input.get_buffer(width * height if bc7 else width * height / 2)
		var image = Image.new()
		image.create_from_data(width, height, false, Image.FORMAT_BPTC_RGBA if bc7 else Image.FORMAT_PVRTC4A, words)
		if image.decompress() != OK:
			print("not decompressed: ", width, " by ", height)
			quit(1)
			return
		image.convert(Image.FORMAT_RGBA8)
		output.store_buffer(image.get_data())
	output.close()
	quit(0)
