--  The library's pool type by its expanded name, in a declaration, as a parent and in a conversion (RM 4.1.3).
with Ada.Text_IO;
with System;
with System.Storage_Elements;
with Block_Pools;

procedure Expanded_Name is
   type K is new Block_Pools.Block_Pool with null record;

   overriding procedure Allocate
     (X : in out K; A : out System.Address; S, L : in System.Storage_Elements.Storage_Count);

   procedure Allocate
     (X : in out K; A : out System.Address; S, L : in System.Storage_Elements.Storage_Count) is
   begin
      Allocate (Block_Pools.Block_Pool (X), A, S, L);
      Ada.Text_IO.Put_Line ("taken");
   end Allocate;
begin
   declare
      P : Block_Pools.Block_Pool (8, 1);
      Q : K (Block_Count => 1, Block_Size => 16);

      type Ref is access Integer with Storage_Pool => P;
      type Other is access Integer with Storage_Pool => Q;

      V : Ref   := new Integer'(3);
      W : Other := new Integer'(V.all + 1);
   begin
      Ada.Text_IO.Put_Line (Integer'Image (V.all) & Integer'Image (W.all));
      V := new Integer;
   end;
end Expanded_Name;
