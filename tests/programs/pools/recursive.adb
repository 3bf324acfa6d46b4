--  Each call has a pool of its own, of one block (RM 13.11).
with Ada.Finalization; use Ada.Finalization;
with Ada.Text_IO;      use Ada.Text_IO;
with Block_Pools;      use Block_Pools;

procedure Recursive is
   type T is new Controlled with record
      N : Integer := 0;
   end record;

   overriding procedure Finalize (X : in out T);

   procedure Finalize (X : in out T) is
   begin
      Put_Line ("F" & Integer'Image (X.N));
   end Finalize;

   procedure Go (N : Integer) is
      P : Block_Pool (16, 1);

      type Ref is access T with Storage_Pool => P;

      A : Ref := new T;
   begin
      A.N := N;
      if N < 3 then
         Go (N + 1);
      end if;
   end Go;
begin
   Go (1);
end Recursive;
