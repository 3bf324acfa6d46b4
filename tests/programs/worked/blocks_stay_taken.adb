--  Each turn has a collection of its own in one pool: its objects are finalized with it, and their blocks stay taken
--  (RM 13.11, 13.11.2).
with Ada.Finalization; use Ada.Finalization;
with Ada.Text_IO;      use Ada.Text_IO;
with Block_Pools;      use Block_Pools;

procedure Blocks_Stay_Taken is
   type T is new Controlled with record
      N : Integer := 0;
   end record;

   overriding procedure Adjust (X : in out T);
   overriding procedure Finalize (X : in out T);

   procedure Adjust (X : in out T) is
   begin
      Put_Line ("A" & Integer'Image (X.N));
   end Adjust;

   procedure Finalize (X : in out T) is
   begin
      Put_Line ("F" & Integer'Image (X.N));
   end Finalize;
begin
   declare
      P : Block_Pool (16, 2);
   begin
      for I in 1 .. 3 loop
         declare
            type Ref is access T;

            for Ref'Storage_Pool use P;

            A : Ref;
         begin
            A := new T;
            A.N := I;
         end;
      end loop;
   exception
      when Storage_Error =>
         Put_Line ("SE");
   end;
end Blocks_Stay_Taken;
