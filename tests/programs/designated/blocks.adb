--  A number takes a block of eight storage units: two fit, a third is refused until one is freed (RM 13.11).
with Ada.Text_IO; use Ada.Text_IO;
with Ada.Unchecked_Deallocation;
with Block_Pools; use Block_Pools;

procedure Blocks is
   P : Block_Pool (8, 2);

   type Ref is access Integer with Storage_Pool => P;

   procedure Free is new Ada.Unchecked_Deallocation (Integer, Ref);

   X, Y, Z : Ref;
begin
   X := new Integer'(1);
   Y := new Integer'(2);
   begin
      Z := new Integer'(3);
   exception
      when Storage_Error =>
         Put_Line ("exhausted " & Boolean'Image (Z = null));
   end;
   Free (X);
   Z := new Integer'(4);
   Put_Line (Integer'Image (Y.all) & Integer'Image (Z.all));
end Blocks;
