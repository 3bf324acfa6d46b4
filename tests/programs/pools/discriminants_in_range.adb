--  The discriminants of a block pool at their limits, by position and by name, as literals and as sums: the size of a
--  block is 8 to 4096, and there are 1 to 65536 blocks (RM 3.7.1, 13.11).
with Ada.Text_IO;             use Ada.Text_IO;
with System.Storage_Elements; use System.Storage_Elements;
with Block_Pools;             use Block_Pools;

procedure Discriminants_In_Range is
   A : Block_Pool (8, 1);
   B : Block_Pool (4096, 1);
   C : Block_Pool (8, 65536);
   D : Block_Pool (Block_Size => 8, Block_Count => 4097);
   E : Block_Pool (Block_Count => 4097, Block_Size => 8);
   F : Block_Pool (4 + 4, 1);
   G : Block_Pool (8, 65535 + 1);
begin
   Put_Line ("open");
end Discriminants_In_Range;
